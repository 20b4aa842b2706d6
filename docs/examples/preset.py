"""The window and the normal form of some presets, and a refusal."""

import winnathey


def show(kind, rank, word):
    """Prints what a preset shows and its normal form."""
    print(f"{kind}{rank}, word", *word)
    print("  window", *winnathey.window_of_word(kind, rank, word))
    print("  normal form", *winnathey.normal_form_of_word(kind, rank, word))


show("B", 2, [1, 2, 1, 2])
show("D", 5, [4, 4, 2, 5, 3, 5, 1, 2])
try:
    # Kind B at rank 2 has no step 3.
    show("B", 2, [1, 2, 3])
except winnathey.Refusal as refusal:
    print(f"  {refusal}")
