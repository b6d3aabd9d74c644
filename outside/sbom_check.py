"""sbom_check.py BILL MADE SOURCES: holds a bill of materials of tools/sbom, SPDX 2.3 as JSON, to the files of the folder MADE and of the
repository SOURCES, by a reading of its own: the fields that SPDX asks for, identifiers that are there once, relations between what is there,
and the SHA-256 of each file. Exit status: 0 where all holds; 1 otherwise."""
import hashlib
import json
import os
import re
import sys

DOCUMENT = ("spdxVersion", "dataLicense", "SPDXID", "name", "documentNamespace", "creationInfo", "packages", "files", "relationships")
PACKAGE = ("name", "SPDXID", "downloadLocation", "licenseConcluded", "licenseDeclared", "copyrightText", "filesAnalyzed")
# Files of a release that are about the others.
ABOUT = {"SHA256SUMS", "treadlewisp.spdx.json"}
FILE = ("fileName", "SPDXID", "checksums", "licenseConcluded", "copyrightText")


def sha256(path):
    with open(path, "rb") as file:
        return hashlib.sha256(file.read()).hexdigest()


def main(bill_path, made, sources):
    with open(bill_path) as file:
        bill = json.load(file)
    faults = [f"the document has no {field}" for field in DOCUMENT if field not in bill]
    parts = bill["packages"] + bill["files"]
    for part in bill["packages"]:
        faults += [f"{part.get('name')} has no {field}" for field in PACKAGE if field not in part]
    for part in bill["files"]:
        faults += [f"{part.get('fileName')} has no {field}" for field in FILE if field not in part]
    names = ["SPDXRef-DOCUMENT"] + [part["SPDXID"] for part in parts]
    faults += [f"{name} is no identifier" for name in names if not re.fullmatch(r"SPDXRef-[A-Za-z0-9.-]+", name)]
    if len(set(names)) != len(names):
        faults.append("an identifier is there twice")
    for one in bill["relationships"]:
        faults += [f"a relation of {end}, which is not there" for end in (one["spdxElementId"], one["relatedSpdxElement"]) if end not in names]
    if bill["spdxVersion"] != "SPDX-2.3" or bill["dataLicense"] != "CC0-1.0":
        faults.append("not SPDX 2.3")
    for part in bill["files"]:
        folder = made if part["SPDXID"].startswith("SPDXRef-Made-") else sources
        path = os.path.join(folder, part["fileName"])
        sums = {one["algorithm"]: one["checksumValue"] for one in part["checksums"]}
        if not os.path.isfile(path) or sums.get("SHA256") != sha256(path):
            faults.append(f"{path} is not the file of the bill")
    for name in set(os.listdir(made)) - ABOUT:
        if not any(part["fileName"] == "./" + name and part["SPDXID"].startswith("SPDXRef-Made-") for part in bill["files"]):
            faults.append(f"{name} is not in the bill")
    for text in faults[:20]:
        print("sbom_check:", text, file=sys.stderr)
    print(f"bill of materials: {len(bill['packages'])} packages, {len(bill['files'])} files, {len(faults)} faults")
    sys.exit(1 if faults else 0)


main(*sys.argv[1:])
