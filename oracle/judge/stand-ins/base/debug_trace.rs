//! Stand-in: the tracing macros of lol_html are not used by the files that are built here.
