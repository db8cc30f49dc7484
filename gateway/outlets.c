/* Where lines go: problems to standard error, the log to standard output, the others to files of the user's alone. */
#include "shell.h"
#include <errno.h>
#include <fcntl.h>
#include <stdarg.h>
#include <stdio.h>

const char *outlet_names[OUTLETS];
bool outlets[OUTLETS];
static FILE *files[OUTLETS];

void out(enum outlet outlet, const char *format, ...) {
	va_list arguments;
	if (!files[outlet])
		return;
	if (outlet == OUT_PROBLEMS)
		fputs("wlim-gateway: ", stderr);
	va_start(arguments, format);
	vfprintf(files[outlet], format, arguments);
	va_end(arguments);
}

static void close_file(enum outlet outlet) {
	bool fails = files[outlet] && (fflush(files[outlet]) != 0 || ferror(files[outlet]));
	if (fails)
		say("%s isn't whole, and goes on in another file at the next renewal: %m", outlet_names[outlet]);
	if (files[outlet])
		fclose(files[outlet]);
	files[outlet] = NULL;
	outlets[outlet] = false;
}

/* A new file, the user's alone; where that can't be, lines go nowhere, which is said. */
static void open_file(enum outlet outlet, unsigned number) {
	char path[4096];
	close_file(outlet);
	if (!outlet_names[outlet])
		return;
	snprintf(path, sizeof path, number > 1 ? "%s.%u" : "%s", outlet_names[outlet], number);
	int file = open(path, O_WRONLY | O_CREAT | O_EXCL | O_NOFOLLOW | O_CLOEXEC, 0600);
	files[outlet] = file >= 0 ? fdopen(file, "w") : NULL;
	outlets[outlet] = files[outlet];
	if (!outlets[outlet])
		say("%s: %m", path);
}

void out_begin(unsigned number) {
	open_file(OUT_RECORD, number);
	open_file(OUT_TAKEN, number);
}

void outlets_open(void) {
	setvbuf(stdout, NULL, _IOLBF, 0);
	files[OUT_PROBLEMS] = stderr;
	files[OUT_LOG] = outlet_names[OUT_LOG] ? stdout : NULL;
	outlets[OUT_LOG] = files[OUT_LOG];
	outlets[OUT_LOG_TEXT] = outlet_names[OUT_LOG_TEXT];
	open_file(OUT_CALLS, 1);
}

bool outlets_all(void) {
	bool all = true;
	for (enum outlet outlet = OUT_RECORD; outlet < OUTLETS; outlet++)
		all &= !outlet_names[outlet] || files[outlet];
	return all;
}

void outlets_flush(void) {
	for (enum outlet outlet = OUT_RECORD; outlet < OUTLETS; outlet++)
		if (files[outlet] && (fflush(files[outlet]) != 0 || ferror(files[outlet])))
			close_file(outlet);
}

void outlets_close(void) {
	for (enum outlet outlet = OUT_RECORD; outlet < OUTLETS; outlet++)
		close_file(outlet);
}
