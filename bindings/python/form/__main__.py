"""Serves the form: python3 bindings/python/form [PORT], at http://127.0.0.1:8000 without one."""

import sys
from pathlib import Path

sys.path.insert(0, str(Path(__file__).resolve().parents[1]))

from form.backend import Backend  # noqa: E402
from form.server import FormServer  # noqa: E402

server = FormServer(("127.0.0.1", int(sys.argv[1]) if len(sys.argv) > 1 else 8000), Backend)
print("http://%s:%d" % server.server_address[:2], flush=True)
try:
    server.serve_forever()
except KeyboardInterrupt:
    pass
finally:
    server.server_close()
