// Makes elements.

/** An element with properties and children. Names with a hyphen, and `role`, are attributes. */
export function make(tag, properties = {}, ...children) {
  const made = document.createElement(tag);
  for (const [name, value] of Object.entries(properties)) {
    if (value === null || value === undefined || value === false) continue;
    if (name.includes("-") || name === "role") made.setAttribute(name, value);
    else made[name] = value;
  }
  made.append(...children.filter((child) => child !== null && child !== undefined && child !== ""));
  return made;
}

/** A span of a class. */
export function span(className, ...children) {
  return make("span", { className }, ...children);
}

export const $ = (id) => document.getElementById(id);
