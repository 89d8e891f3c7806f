# builder.sh - program.h as another C program uses it.
expect "the builder's table" build/sanitized/builder
