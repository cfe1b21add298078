"""The pages of this repository: what each says, names and shows is true."""
