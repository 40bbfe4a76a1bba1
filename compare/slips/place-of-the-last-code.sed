# too many pixels of a run are placed at its last code, not at its first
s/crate::place::mark(first);/let _ = first;/
