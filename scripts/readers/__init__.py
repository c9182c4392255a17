"""What texts and packets say, read by the formats alone, beside the program's own reading of them."""
