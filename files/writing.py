"""Files that are written."""
import os
import tempfile


def written(path: str, content: bytes) -> None:
    """Writes a file whole or not at all."""
    with tempfile.NamedTemporaryFile(dir=os.path.dirname(path) or ".", prefix=".smash-files.", delete=False) as new:
        try:
            new.write(content)
            new.close()
            os.chmod(new.name, 0o644)
            os.replace(new.name, path)
        except BaseException:
            os.unlink(new.name)
            raise
