// Copies text: by keys, and of rows that the mouse has selected.

/** Copies a text. Whether it is copied. */
export function copyText(text) {
  const put = (event) => {
    event.clipboardData.setData("text/plain", text);
    event.preventDefault();
    event.stopImmediatePropagation();
  };
  document.addEventListener("copy", put, { capture: true });
  const isCopied = document.execCommand("copy");
  document.removeEventListener("copy", put, { capture: true });
  return isCopied;
}

/** Whether the mouse has selected text in a view. */
export function isTextSelected(view) {
  const selection = getSelection();
  return !selection.isCollapsed && view.contains(selection.anchorNode);
}

/** Copies whole rows as lines, if text of more than one is selected, and the cells of one row with spaces between them. */
export function copyRows() {
  document.addEventListener("copy", (event) => {
    const selection = getSelection(), rows = [...document.querySelectorAll(".rows > div")].filter((it) => selection.containsNode(it, true));
    if (!rows.length || selection.isCollapsed || event.target.closest("input, textarea")) return;
    const line = (row) => Array.from(row.children, (it) => it.textContent.trim()).filter(Boolean).join("  ");
    const text = rows.length > 1 ? rows.map((row) => (row.children.length ? line(row) : row.textContent)).join("\n") : String(selection).replace(/\s*\n\s*/g, "  ");
    event.clipboardData.setData("text/plain", text);
    event.preventDefault();
  });
}
