"""The pages of the repository: what is made of the definitions, and whether what a page names is there."""
