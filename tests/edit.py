"""An edit is a small change that makes the code, or a rule, wrong, so that the prover has to refuse it. Its file has lines of these kinds:
  # what it means, in document 01's words
  file: the file that is changed
  old: text that is there once
  new: what stands there instead (`old:` and `new:`, or all three, as often as needed)
  WORD: TEXT, for each word that those who try the edit ask for; also behind "# ", where the line is for a reader who passes over it"""


class Bad(Exception):
    """The edit cannot be tried as it stands."""


class Edit:
    def __init__(self, path, words):
        self.path, self.name = path, path.stem
        self.pairs = []
        self.said = dict.fromkeys(words, "")
        file = old = None
        for text in path.read_text(encoding="utf-8").splitlines():
            key, _, value = text.removeprefix("# ").partition(":")
            value = value.removeprefix(" ")
            if not text or text.startswith("#") and key not in words:
                continue
            if key == "file":
                file = value
            elif key == "old":
                old = value
            elif key == "new":
                if not file or not old:
                    raise Bad("a 'new:' comes without a 'file:' or an 'old:'")
                self.pairs.append((file, old, value))
                old = None
            elif key in words:
                self.said[key] = value
            else:
                raise Bad(f"what is '{text}'?")
        if not self.pairs:
            raise Bad("it changes nothing")

    def make(self, path_of):
        """Makes the changes, in the files that path_of gives for the names."""
        for file, old, new in self.pairs:
            path = path_of(file)
            if path is None or not path.is_file():
                raise Bad(f"there is no file {file}")
            text = path.read_text(encoding="utf-8")
            if text.count(old) != 1:
                raise Bad(f"'{old}' is {text.count(old)} times in {file}")
            path.write_text(text.replace(old, new), encoding="utf-8")
