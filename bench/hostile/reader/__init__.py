"""An independent, unproved reader of accepted sources, traces and invariant files, which judges what `replay` and `check` judge."""
