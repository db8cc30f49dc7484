/*
 * A window of GTK 4 with two entries, the second for a password: entries NAME. NAME is its app id. Each change of a text
 * is a line on standard output: the entry's number, 1 or 2, and its text in hex.
 */
#include <gtk/gtk.h>

static void on_changed(GtkEditable *entry, void *data)
{
	const char *text = gtk_editable_get_text(entry);
	g_print("%d ", GPOINTER_TO_INT(data));
	for (const unsigned char *at = (const unsigned char *)text; *at; at++)
		g_print("%02x", *at);
	g_print("\n");
}

int main(int count, char **words)
{
	if (count != 2)
		return 2;
	g_set_prgname(words[1]);
	gtk_init();
	GtkWidget *window = gtk_window_new(), *box = gtk_box_new(GTK_ORIENTATION_VERTICAL, 0);
	GtkWidget *entries[2] = { gtk_entry_new(), gtk_password_entry_new() };
	gtk_window_set_child(GTK_WINDOW(window), box);
	for (int at = 0; at < 2; at++) {
		gtk_box_append(GTK_BOX(box), entries[at]);
		g_signal_connect(entries[at], "changed", G_CALLBACK(on_changed), GINT_TO_POINTER(at + 1));
	}
	gtk_window_present(GTK_WINDOW(window));
	gtk_widget_grab_focus(entries[0]);
	for (;;)
		g_main_context_iteration(NULL, TRUE);
}
