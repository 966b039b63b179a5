"""What looks after the repository: the bodies of the scripts of tools/ that build it, and that hold its pages and tables against its sources, each in the
module of its name (that of tools/compile is compiling). It proves nothing."""
