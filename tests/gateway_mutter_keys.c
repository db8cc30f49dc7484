/*
 * A keyboard and a pointer at Mutter, by its interface for remote desktops on the session bus: reads lines `key CODE
 * STATE` and `button CODE STATE`, of evdev's numbers and 0 or 1, and `move X Y`, by so many pixels, and prints `ok`
 * after each. `ready` comes first.
 */
#include <gio/gio.h>
#include <stdio.h>

#define NAME "org.gnome.Mutter.RemoteDesktop"

static GDBusConnection *bus;

/* Calls, and ends the program where that fails. */
static GVariant *call(const char *path, const char *interface, const char *method, GVariant *arguments)
{
	GError *error = NULL;
	GVariant *answer = g_dbus_connection_call_sync(bus, NAME, path, interface, method, arguments, NULL,
		G_DBUS_CALL_FLAGS_NONE, -1, NULL, &error);
	if (!answer)
		g_error("%s: %s", method, error->message);
	return answer;
}

int main(void)
{
	const char *session;
	char what[16];
	int first, second;
	bus = g_bus_get_sync(G_BUS_TYPE_SESSION, NULL, NULL);
	if (!bus)
		g_error("there is no session bus");
	g_variant_get(call("/org/gnome/Mutter/RemoteDesktop", NAME, "CreateSession", NULL), "(&o)", &session);
	call(session, NAME ".Session", "Start", NULL);
	puts("ready");
	fflush(stdout);
	while (scanf("%15s %d %d", what, &first, &second) == 3) {
		if (what[0] == 'k')
			call(session, NAME ".Session", "NotifyKeyboardKeycode", g_variant_new("(ub)", (guint)first, second != 0));
		else if (what[0] == 'b')
			call(session, NAME ".Session", "NotifyPointerButton", g_variant_new("(ib)", first, second != 0));
		else
			call(session, NAME ".Session", "NotifyPointerMotionRelative", g_variant_new("(dd)", (double)first, (double)second));
		puts("ok");
		fflush(stdout);
	}
	return 0;
}
