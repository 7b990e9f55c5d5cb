"""Reports: what their lines say."""
