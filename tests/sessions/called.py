"""`tools/sessions` as a module, so that many small sessions need no Python each; each proof in binary too."""

import contextlib
import importlib.machinery
import importlib.util
import io
import tempfile

import binary


class Called:
    def __init__(self, path):
        loader = importlib.machinery.SourceFileLoader("sessions", path)
        self.module = importlib.util.module_from_spec(importlib.util.spec_from_loader("sessions", loader))
        loader.exec_module(self.module)
        self.twins = 0

    def check(self, interaction, proof):
        """The status of `sessions check`, and what it says: the same of a proof that has no binary form, or of both."""
        with open(proof, encoding="latin-1", newline="") as file:
            twin = binary.twin(file.read())
        found = self.check_one(interaction, proof)
        if twin is None:
            return found
        self.twins += 1
        with tempfile.NamedTemporaryFile() as file:
            file.write(twin)
            file.flush()
            other = self.check_one(interaction, file.name)
        return found if other == found else (3, f"{found}, but of the proof in binary {other}")

    def check_one(self, interaction, proof):
        out = io.StringIO()
        with contextlib.redirect_stdout(out):
            try:
                status = self.module.Checked(interaction, proof).check(True)
            except self.module.Fault as fault:
                return 1, str(fault)
        return status, out.getvalue()
