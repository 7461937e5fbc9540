"""The settings of Django: `base` is shared, `desk` is one person's, others are an office's."""
