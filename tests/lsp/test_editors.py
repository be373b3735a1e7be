"""Editors drive the language server: their scripts say what fails, and count in their last line."""
import os
import pathlib
import re
import shutil
import subprocess

import pytest

HERE = pathlib.Path(__file__).resolve().parent
ELPA = pathlib.Path("/usr/share/emacs/site-lisp/elpa")
LOAD = '(let ((default-directory "%s")) (normal-top-level-add-subdirs-to-load-path))' % ELPA
EDITORS = {
    "Neovim": ["nvim", "--headless", "-u", "NONE", "-i", "NONE", "-n", "-S", HERE / "nvim.lua"],
    "Emacs Eglot": ["emacs", "-Q", "--batch", "--eval", LOAD, "-l", HERE / "emacs.el"],
}


@pytest.mark.parametrize("editor", EDITORS)
def test_editor(program, editor):
    command = EDITORS[editor]
    if not shutil.which(command[0]) or editor == "Emacs Eglot" and not any(ELPA.glob("eglot-*")):
        pytest.skip(f"{editor}, which is not there")
    environment = {**os.environ, "SERVER": f"{program} lsp"}
    ran = subprocess.run(
        command, env=environment, stdin=subprocess.DEVNULL, capture_output=True, text=True
    )
    assert re.search(r"^[1-9]\d* passed, 0 failed$", ran.stdout, re.M), ran.stdout + ran.stderr
