"""Links between the documents: each leads to a file and a heading that are there, and README leads to all documents."""

import os
from urllib.parse import unquote

from text import anchor_of

README = "README.md"
DEMAND_3 = ("docs/CLAIMS.md", anchor_of("Demand 3: one claim over whole lists"))
DEMAND_3_MOST = 3  # links from README to the statement of demand 3
DOCUMENT_MOST = 2  # links from README to any document
OUTSIDE = ("http://", "https://", "mailto:")


def leads_to(document, target):
    """The path of a link from the root, and its anchor or an empty text."""
    path, _, anchor = target.partition("#")
    path = os.path.normpath(os.path.join(os.path.dirname(document.name), unquote(path))) if path else document.name
    return path, unquote(anchor)


def links_in(document):
    return [(link, *leads_to(document, link.target)) for link in document.links if not link.target.startswith(OUTSIDE)]


def check_link(tree, document, link, path, anchor, faults):
    if path.startswith("..") or os.path.isabs(path) or path.split(os.sep)[0] == "target" or not tree.has(path):
        faults.add(document.name, link.line, "a link to %s" % link.target, "a file of this tree")
    elif anchor and path not in tree.documents:
        faults.add(document.name, link.line, "a link to %s" % link.target, "an anchor in a document only")
    elif anchor and anchor not in tree.documents[path].anchors:
        faults.add(document.name, link.line, "a link to %s" % link.target, "a heading of %s with this anchor" % path)


def distances(tree):
    """The number of links on the shortest way from README to each document that can be reached."""
    found = {README: 0}
    reached = [README]
    for name in reached:
        for _, path, _ in links_in(tree.documents[name]):
            if path in tree.documents and path not in found:
                found[path] = found[name] + 1
                reached.append(path)
    return found


def check_reach(tree, faults):
    far = distances(tree)
    for name in tree.documents:
        if name.startswith("docs/") and far.get(name, DOCUMENT_MOST + 1) > DOCUMENT_MOST:
            faults.add(README, 0, "no way to %s in %d links" % (name, DOCUMENT_MOST), "one")
    path, anchor = DEMAND_3
    if anchor not in tree.documents[path].anchors:
        faults.add(path, 0, "no heading with the anchor %s" % anchor, "the statement of demand 3 below it")
    ways = [far[name] + 1 for name in far for _, *end in links_in(tree.documents[name]) if tuple(end) == DEMAND_3]
    if min(ways, default=DEMAND_3_MOST + 1) > DEMAND_3_MOST:
        faults.add(README, 0, "no way to %s#%s in %d links" % (path, anchor, DEMAND_3_MOST), "one")


def check(tree, faults):
    count = 0
    for document in tree.documents.values():
        for link, path, anchor in links_in(document):
            check_link(tree, document, link, path, anchor, faults)
            count += 1
    check_reach(tree, faults)
    return {"links": count}
