"""The command lines of the tools; each module has a `main` over the words, and `call` over those of its process."""
