/*
 * An entry of GTK 4 in a window of its own: embed_entry FILE [ID [KIND]] writes what is in it to FILE, at each change. KIND
 * is entry, password, or popover: then a button has the focus, and opens a popover with the entry.
 */
#include <gtk/gtk.h>

static const char *file, *kind;

static void on_changed(GtkEditable *entry, gpointer data)
{
	(void)data;
	g_file_set_contents(file, gtk_editable_get_text(entry), -1, NULL);
}

static void on_activate(GtkApplication *program, gpointer data)
{
	GtkWidget *window = gtk_application_window_new(program), *button = NULL;
	GtkWidget *entry = strcmp(kind, "password") == 0 ? gtk_password_entry_new() : gtk_entry_new();
	(void)data;
	gtk_widget_set_valign(entry, GTK_ALIGN_START);
	g_signal_connect(entry, "changed", G_CALLBACK(on_changed), NULL);
	if (strcmp(kind, "popover") == 0) {
		GtkWidget *popover = gtk_popover_new();
		gtk_popover_set_child(GTK_POPOVER(popover), entry);
		button = gtk_menu_button_new();
		gtk_menu_button_set_label(GTK_MENU_BUTTON(button), "open");
		gtk_menu_button_set_popover(GTK_MENU_BUTTON(button), popover);
		gtk_widget_set_valign(button, GTK_ALIGN_START);
		gtk_window_set_default_size(GTK_WINDOW(window), 300, 200);
	}
	gtk_window_set_child(GTK_WINDOW(window), button ? button : entry);
	gtk_widget_grab_focus(button ? button : entry);
	gtk_window_present(GTK_WINDOW(window));
}

int main(int count, char **words)
{
	GtkApplication *program = gtk_application_new(NULL, G_APPLICATION_NON_UNIQUE);
	file = count > 1 ? words[1] : "/dev/null";
	kind = count > 3 ? words[3] : "entry";
	if (count > 2)
		g_set_prgname(words[2]); /* the window's application id */
	g_signal_connect(program, "activate", G_CALLBACK(on_activate), NULL);
	return g_application_run(G_APPLICATION(program), 0, NULL);
}
