/* An entry of GTK 3 in a window of its own: gateway_entry3 FILE ID writes what is in it to FILE, at each change. */
#include <gtk/gtk.h>

static void on_changed(GtkEntry *entry, gpointer file)
{
	g_file_set_contents(file, gtk_entry_get_text(entry), -1, NULL);
}

int main(int count, char **words)
{
	if (count < 3)
		return 2;
	g_set_prgname(words[2]); /* the window's application id */
	gtk_init(&count, &words);
	GtkWidget *window = gtk_window_new(GTK_WINDOW_TOPLEVEL), *entry = gtk_entry_new();
	GtkWidget *box = gtk_box_new(GTK_ORIENTATION_VERTICAL, 0);
	g_signal_connect(entry, "changed", G_CALLBACK(on_changed), words[1]);
	g_signal_connect(window, "destroy", G_CALLBACK(gtk_main_quit), NULL);
	gtk_box_pack_start(GTK_BOX(box), entry, FALSE, FALSE, 0);
	gtk_container_add(GTK_CONTAINER(window), box);
	gtk_widget_show_all(window);
	gtk_main();
	return 0;
}
