"""The generated rows of the test crates: made section by section, compared with a manifest, and fed to the programs."""
