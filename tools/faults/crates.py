"""Faults of the list of crates, of their page and of its picture."""
LIST, PAGE, PICTURE = "crates.txt", "crates/README.md", "docs/pictures/layers.svg"

FAULTS = (
    ("a crate of definitions that is not listed", LIST, "~coxeter:\n", "", r"^crates\.txt does not list the crate coxeter, so that it is not proved"),
    ("a crate of code that is not listed", LIST, "~delay: .*\n", "", r"crates\.txt does not list the crate delay, so that it is not proved"),
    ("a crate that is a comment", LIST, "test_listing_books:", "# test_listing_books:", r"crates\.txt does not list the crate test_listing_books"),
    ("a crate listed twice", LIST, "~(delay: .*\n)", r"\1\1", r"crates\.txt lists delay twice"),
    ("a crate without a folder", LIST, "coxeter:\n", "coxeter:\nserie: coxeter\n", r"crates\.txt lists serie, and crates/ has no folder"),
    ("no list of crates", LIST, "", None, r"^crates\.txt is missing"),
    ("a crate missing in the picture", PICTURE, ">messages<", "><", r"layers\.svg does not have the crate messages"),
    ("a program missing in the picture", PICTURE, ", to_second,", ",", r"layers\.svg does not have the crate to_second"),
    ("a crate of the picture that is gone", PICTURE, ">delay<", ">exchange<", r"layers\.svg has exchange, which is no crate"),
    ("a crate missing on the page", PAGE, "~\\| `messages` \\|.*\n", "", r"crates/README\.md does not have the crate messages"),
    ("a crate of the page that is gone", PAGE, "| `delay` | the", "| `exchange` | the", r"crates/README\.md has exchange, which is no crate"),
)
