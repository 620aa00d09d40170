"""A folder as a zip that is the same for the same files: zip.py PARENT FOLDER SECONDS OUT"""
import sys
import time
import zipfile
from pathlib import Path

parent, folder, seconds, out = Path(sys.argv[1]), sys.argv[2], int(sys.argv[3]), sys.argv[4]
when = max(time.gmtime(seconds)[:6], (1980, 1, 1, 0, 0, 0))  # the first day that a zip has
files = sorted(path for path in (parent / folder).rglob("*") if path.is_file())
if not files:
    sys.exit(f"zip: {folder} has no files")
with zipfile.ZipFile(out, "w", zipfile.ZIP_DEFLATED, compresslevel=9) as made:
    for path in files:
        entry = zipfile.ZipInfo(str(path.relative_to(parent)), when)
        entry.compress_type, entry.external_attr = zipfile.ZIP_DEFLATED, (path.stat().st_mode & 0o777) << 16
        entry.create_system = 3
        made.writestr(entry, path.read_bytes())
