"""What a checkout has to do, plain and slow. It goes by docs/FORMATS.md, and makes no use of the program."""
