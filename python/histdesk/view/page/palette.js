// The colours of the style sheet, for browsers that do not know light-dark().

import { byId } from "./elements.js";

const PAIR = /^light-dark\((.+), (.+)\)$/;

export function startPalette() {
  if (CSS.supports("color", "light-dark(red, red)")) return;
  const isDark = matchMedia("(prefers-color-scheme: dark)");
  const rules = [...document.styleSheets].flatMap((sheet) => [...sheet.cssRules]);
  const pairs = rules
    .filter(({ selectorText }) => selectorText === ":root")
    .flatMap(({ style }) => [...style].map((name) => [name, style.getPropertyValue(name).trim().match(PAIR)]))
    .filter(([, pair]) => pair);
  const apply = () => {
    const scheme = byId("theme").value || (isDark.matches ? "dark" : "light");
    for (const [name, [, light, dark]] of pairs) {
      document.documentElement.style.setProperty(name, scheme === "dark" ? dark : light);
    }
  };
  byId("theme").addEventListener("change", apply);
  isDark.addEventListener("change", apply);
  apply();
}
