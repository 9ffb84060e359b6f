"""C by NASA's Copilot, of past formulas over two Booleans p and q and an integer x."""

from __future__ import annotations

import subprocess
from pathlib import Path
from typing import Sequence

from past_formulas import Formula

NAMES = {"O": "eventuallyPrev", "H": "alwaysBeen", "S": "since"}
SIGNS = {"&&": "&&", "||": "||", "->": "==>"}
MODULE = """module Main where
import Language.Copilot hiding (since)
import Copilot.Compile.C99
import qualified Copilot.Library.MTL as M
import Prelude (IO)

ticks :: Stream Int64
ticks = [0] ++ (ticks + 1)
p, q :: Stream Bool
p = extern "p" Nothing
q = extern "q" Nothing
x :: Stream Int32
x = extern "x" Nothing
spec :: Spec
spec = do
{triggers}
main :: IO ()
main = reify spec >>= compile "peer"
"""


def haskell(it: Formula) -> str:
    """A formula as a stream of Copilot."""
    if not it.parts:
        return it.op if it.op in "pq" else f"(x {it.op[2]} ({it.op[4:]}))"
    parts = [haskell(part) for part in it.parts]
    if it.op == "!":
        return f"(not {parts[0]})"
    if it.op in SIGNS:
        return f"({parts[0]} {SIGNS[it.op]} {parts[1]})"
    return f"(M.{NAMES[it.op]} {it.low} {it.high} ticks 1 {' '.join(parts)})"


def write(formulas: Sequence[Formula], folder: Path) -> None:
    """Writes peer.c and peer.h into a folder: `step` calls out0 and so on with the verdicts of a row."""
    triggers = "\n".join(f'  trigger "out{k}" true [arg {haskell(it)}]' for k, it in enumerate(formulas))
    (folder / "peer.hs").write_text(MODULE.format(triggers=triggers))
    for words in (("ghc", "-v0", "-O0", "peer.hs", "-o", "peer"), ("./peer",)):
        subprocess.run(words, cwd=folder, check=True)


def version() -> str:
    return subprocess.run(["dpkg-query", "-W", "-f", "${Version}", "libghc-copilot-dev"], capture_output=True, text=True).stdout
