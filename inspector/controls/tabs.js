// Tabs are shown where the views don't fit beside one another.

export function startTabs() {
  const tabs = [...document.querySelectorAll("[role=tab]")];
  const show = (name) => {
    document.body.dataset.view = name;
    for (const tab of tabs) {
      const isShown = tab.dataset.view === name;
      tab.setAttribute("aria-selected", String(isShown));
      tab.tabIndex = isShown ? 0 : -1;
    }
  };
  for (const [i, tab] of tabs.entries()) {
    tab.onclick = () => show(tab.dataset.view);
    tab.onkeydown = ({ key }) => {
      const step = { ArrowRight: 1, ArrowLeft: -1 }[key];
      if (!step) return;
      const to = tabs[(i + step + tabs.length) % tabs.length];
      show(to.dataset.view);
      to.focus();
    };
  }
  show("verdict");
}
