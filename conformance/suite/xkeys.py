"""Keys of an X server without a screen, for a compositor that is a window of it."""
import ctypes


class XKeys:
    """A keyboard of the X server with that name."""

    def __init__(self, display):
        self.x, self.test = ctypes.CDLL("libX11.so.6"), ctypes.CDLL("libXtst.so.6")
        self.x.XOpenDisplay.restype = ctypes.c_void_p
        self.display = ctypes.c_void_p(self.x.XOpenDisplay(display.encode()))
        if not self.display.value:
            raise OSError(f"no X server {display}")
        self.test.XTestFakeMotionEvent(self.display, 0, 1270, 710, 0)
        self.x.XSync(self.display, 0)

    def key(self, key, state):
        """A key by its number of evdev."""
        self.test.XTestFakeKeyEvent(self.display, key + 8, state, 0)
        self.x.XSync(self.display, 0)

    def end(self):
        self.x.XCloseDisplay(self.display)
