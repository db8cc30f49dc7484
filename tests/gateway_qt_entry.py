#!/usr/bin/python3
"""An entry of Qt's in a window: writes what it has to FILE, at each change: gateway_qt_entry.py 5|6 FILE ID"""
import importlib
import sys

widgets = importlib.import_module(f"PyQt{sys.argv[1]}.QtWidgets")
gui = importlib.import_module(f"PyQt{sys.argv[1]}.QtGui")


def write(text):
    with open(sys.argv[2], "w", encoding="utf-8") as file:
        file.write(text)


program = widgets.QApplication(sys.argv[:1])
gui.QGuiApplication.setDesktopFileName(sys.argv[3])  # the window's application id
entry = widgets.QLineEdit()
entry.textChanged.connect(write)
entry.show()
sys.exit(program.exec() if sys.argv[1] == "6" else program.exec_())
