#!/usr/bin/env python3
"""Packs editors/vscode into an extension that `code --install-extension FILE.vsix` takes.

  tools/vsix.py FILE.vsix
"""
from __future__ import annotations

import json
import re
import sys
import zipfile
from pathlib import Path
from typing import Any, Dict, Iterator
from xml.sax.saxutils import escape, quoteattr

Package = Dict[str, Any]

TOP = Path(__file__).resolve().parent.parent
LONG_AGO = (1980, 1, 1, 0, 0, 0)
TYPES = """<?xml version="1.0" encoding="utf-8"?>
<Types xmlns="http://schemas.openxmlformats.org/package/2006/content-types">
  <Default Extension=".js" ContentType="application/javascript"/>
  <Default Extension=".json" ContentType="application/json"/>
  <Default Extension=".md" ContentType="text/markdown"/>
  <Default Extension=".vsixmanifest" ContentType="text/xml"/>
</Types>
"""


# of vsce, the packer of Microsoft, for the keys of package.json that are texts
SHAPES = {
    "name": r"[a-z0-9][a-z0-9-]*", "publisher": r"[a-z0-9][a-z0-9-]*", "version": r"\d+\.\d+\.\d+",
    "displayName": r".{1,200}", "description": r".{1,2000}", "license": r".+", "main": r"\./[\w./-]+\.js"}
CATEGORIES = {
    "AI", "Azure", "Chat", "Data Science", "Debuggers", "Education", "Extension Packs", "Formatters",
    "Keymaps",
    "Language Packs", "Linters", "Machine Learning", "Notebooks", "Other", "Programming Languages",
    "SCM Providers",
    "Snippets", "Testing", "Themes", "Visualization"}
ENGINE = r"[\^~>=]*\d+\.\d+\.(\d+|x)"
LINK = re.compile(r"!?\[[^\]]*\]\(([^)]*)\)|<img[^>]*src=[\"']([^\"']*)")
MOST_KEYWORDS = 30


def faults(package: Package, members: Dict[str, str]) -> Iterator[str]:
    """What `vsce package` would refuse or warn of in package.json and the extension's files."""
    for key, shape in SHAPES.items():
        if not re.fullmatch(shape, str(package.get(key) or ""), re.IGNORECASE):
            yield f"{key} is missing or has a wrong form"
    if not re.fullmatch(ENGINE, package.get("engines", {}).get("vscode", "")):
        yield "engines.vscode has to be a range, as ^1.60.0"
    repository = package.get("repository", {})
    if not isinstance(repository, dict) or not str(repository.get("url", "")).startswith("https://"):
        yield "repository.url has to be an address with https"
    unknown = [name for name in package.get("categories", []) if name not in CATEGORIES]
    yield from (f"categories: {name} is unknown" for name in unknown)
    if len(package.get("keywords", [])) > MOST_KEYWORDS:
        yield f"keywords: there are more than {MOST_KEYWORDS}"
    main = "extension/" + str(package.get("main", "")).removeprefix("./")
    if main not in members:
        yield f"main: {main} is not packed"
    yield from faults_of_use(package, members.get(main, ""))
    for found in LINK.finditer(members.get("extension/README.md", "")):
        target = found[1] or found[2] or ""
        is_drawn = found[0].startswith(("!", "<")) and target.endswith(".svg")
        if is_drawn or not target.startswith(("https://", "#")):
            yield f"README.md: {target} has to be an address with https, and no image in SVG"


def faults_of_use(package: Package, code: str) -> Iterator[str]:
    """What is wrong between package.json and the code: commands of one alone, and events that start nothing."""
    events, gives = package.get("activationEvents", []), package.get("contributes", {})
    if not events or "*" in events:
        yield "activationEvents have to name events, and not all"
    known = {one["command"] for one in gives.get("commands", [])}
    registered = set(re.findall(r'registerCommand\("([^"]+)"', code))
    yield from (f"{name} is not both contributed and registered" for name in sorted(known ^ registered))
    for name in sorted(known):
        if f"onCommand:{name}" not in events:
            yield f"activationEvents: onCommand:{name} is missing, which editors before 1.74 need"
    used = {one["command"] for menu in gives.get("menus", {}).values() for one in menu}
    yield from (f"menus: {name} is no command" for name in sorted(used - known))
    types = {one["type"] for one in gives.get("debuggers", [])}
    started = {event.partition(":")[2] for event in events if event.startswith("onDebug") and ":" in event}
    yield from (f"activationEvents: {name} is no debugger" for name in sorted(started - types))


def manifest(package: Package) -> str:
    """The text of extension.vsixmanifest for a package.json."""
    name, publisher, version = (quoteattr(package[key]) for key in ("name", "publisher", "version"))
    return f"""<?xml version="1.0" encoding="utf-8"?>
<PackageManifest Version="2.0.0" xmlns="http://schemas.microsoft.com/developer/vsx-schema/2011">
  <Metadata>
    <Identity Language="en-US" Id={name} Version={version} Publisher={publisher}/>
    <DisplayName>{escape(package["displayName"])}</DisplayName>
    <Description xml:space="preserve">{escape(package["description"])}</Description>
    <Tags>{escape(",".join(package["keywords"]))}</Tags>
    <Categories>{escape(",".join(package["categories"]))}</Categories>
    <GalleryFlags>Public</GalleryFlags>
    <Properties>
      <Property Id="Microsoft.VisualStudio.Services.Links.Source" Value={quoteattr(package["repository"]["url"])}/>
      <Property Id="Microsoft.VisualStudio.Code.Engine" Value={quoteattr(package["engines"]["vscode"])}/>
      <Property Id="Microsoft.VisualStudio.Code.ExtensionKind" Value={quoteattr(",".join(package["extensionKind"]))}/>
    </Properties>
  </Metadata>
  <Installation><InstallationTarget Id="Microsoft.VisualStudio.Code"/></Installation>
  <Dependencies/>
  <Assets>
    <Asset Type="Microsoft.VisualStudio.Code.Manifest" Path="extension/package.json" Addressable="true"/>
    <Asset Type="Microsoft.VisualStudio.Services.Content.Details" Path="extension/README.md" Addressable="true"/>
  </Assets>
</PackageManifest>
"""


def make_vsix(target: Path) -> None:
    """Writes the extension; the same sources give the same bytes. Raises ValueError where no editor would take it."""
    sources = TOP / "editors/vscode"
    texts = {name: (sources / name).read_text(encoding="utf-8") for name in ("package.json", "extension.js")}
    texts["README.md"] = (TOP / "editors/README.md").read_text(encoding="utf-8")
    package = json.loads(texts["package.json"])
    members = {f"extension/{name}": text for name, text in texts.items()}
    found = list(faults(package, members))
    if found:
        raise ValueError("; ".join(found))
    members = {"[Content_Types].xml": TYPES, "extension.vsixmanifest": manifest(package), **members}
    with zipfile.ZipFile(target, "w", zipfile.ZIP_DEFLATED) as archive:
        for name, text in members.items():
            member = zipfile.ZipInfo(name, LONG_AGO)
            member.external_attr = 0o644 << 16
            member.compress_type = zipfile.ZIP_DEFLATED
            archive.writestr(member, text)


if __name__ == "__main__":
    if len(sys.argv) != 2 or sys.argv[1].startswith("-"):
        sys.exit(__doc__)
    try:
        make_vsix(Path(sys.argv[1]))
    except OSError as error:
        sys.exit(f"actrun: vsix: {error.filename}: {error.strerror}")
    except ValueError as error:
        sys.exit(f"actrun: vsix: editors/vscode: {error}")
