//! Stand-in: the original's module of this name is not in the text, and nothing here uses it.
