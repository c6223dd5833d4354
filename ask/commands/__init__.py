"""The commands of ask, one a module: each adds its words to a parser and gives an answer."""
