// Stands in for each module of options/ of which the sender uses nothing.
