"""What `conform` and the tests of this folder share: results of a run, building, targets, coverage and output."""
