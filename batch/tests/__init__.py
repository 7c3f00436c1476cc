"""The tests of the scripts: `batch/check` runs those that need nothing beyond Python, `batch/try` the others too."""
