"""Wrong definitions behind switches: changes of code that rows have to notice."""
