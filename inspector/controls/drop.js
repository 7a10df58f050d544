// Files that are dropped on the page.

/** Calls `openFiles` with files that are dropped. */
export function takeFiles(openFiles) {
  let dragged = 0;
  const hasFile = (event) => event.dataTransfer?.types.includes("Files");
  const shade = (isOver) => document.body.classList.toggle("dropping", isOver);
  window.addEventListener("dragenter", (event) => { if (hasFile(event)) { dragged++; shade(true); } });
  window.addEventListener("dragleave", (event) => { if (hasFile(event) && --dragged <= 0) { dragged = 0; shade(false); } });
  window.addEventListener("dragover", (event) => { if (hasFile(event)) event.preventDefault(); });
  window.addEventListener("drop", (event) => {
    if (!hasFile(event)) return;
    event.preventDefault();
    dragged = 0;
    shade(false);
    openFiles(event.dataTransfer.files);
  });
}
