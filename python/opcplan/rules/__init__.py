"""Forms, statements, definitions, refusals: what is known without any file."""
