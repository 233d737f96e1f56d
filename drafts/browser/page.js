// Tells what the browser made of fragments: of those in the page, as its parser read them, and of
// those in `given`, each set as an element's innerHTML. A line for each: way, number, elements by
// name, spans. All of it is ASCII, texts in base64.

const decoded = (base64) =>
    new TextDecoder("utf-8", { fatal: true, ignoreBOM: true })
        .decode(Uint8Array.from(atob(base64), (byte) => byte.charCodeAt(0)));

const encoded = (text) => {
    let bytes = "";
    for (const byte of new TextEncoder().encode(text)) {
        bytes += String.fromCharCode(byte);
    }
    return btoa(bytes);
};

// How many elements of each name are below, and attributes, by `@` and their name.
function elements(root) {
    const counts = new Map();
    const count = (name) => counts.set(name, (counts.get(name) ?? 0) + 1);
    for (const element of root.querySelectorAll("*")) {
        count(element.localName);
        element.getAttributeNames().forEach((name) => count("@" + name));
    }
    return [...counts].map(([name, count]) => `${name}=${count}`).sort().join(",") || "-";
}

// The text below a node, a line feed for each `br`, with the elements around each part of it.
function walk(node, around, parts) {
    if (node.nodeType === Node.TEXT_NODE || node.localName === "br") {
        const text = node.localName === "br" ? "\n" : node.data;
        const last = parts[parts.length - 1];
        if (last !== undefined && last.around === around) {
            last.text += text;
        } else {
            parts.push({ around, text });
        }
        return parts;
    }
    const name = node.nodeType === Node.ELEMENT_NODE ? node.localName : node.nodeName;
    const inside = around === "" ? name : `${around}.${name}`;
    node.childNodes.forEach((child) => walk(child, inside, parts));
    return parts;
}

function line(way, number, root) {
    const spans = [...root.childNodes].map((child) =>
        walk(child, "", []).map((part) => `${part.around}:${encoded(part.text)}`).join("|"));
    return `${way} ${number} ${elements(root)} ${spans.join(";") || "-"}`;
}

const lines = [];
document.querySelectorAll("body > div").forEach((root, number) => {
    lines.push(line("parsed", number, root));
});
given.forEach((fragment, number) => {
    const root = document.createElement("div");
    document.body.append(root);
    root.innerHTML = decoded(fragment);
    lines.push(line("set", number, root));
});
document.body.textContent = `BEGIN\n${lines.join("\n")}\nEND`;
