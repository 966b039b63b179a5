"""What the scripts of tools/, bench/ and examples/ share, and the bodies of those scripts of tools/ that read models and texts, each in the module of its
name. It proves nothing. tools/recheck has a reader of models and certificates of its own: an independent judge."""
