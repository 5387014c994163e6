// What every part of the page needs of the document.

/** The element of a name. */
export const at = (id) => document.getElementById(id);

/** Says something in an element. Of a refusal the lines after the first show the place, and stay as they are. */
export function tell(element, kind, words) {
  const [first, ...place] = kind === 'refused' ? words.split('\n') : [words];
  element.className = `${element.dataset.part ?? ''} status ${kind}`;
  element.replaceChildren(first);
  if (place.length === 0) return;
  const lines = document.createElement('pre');
  lines.textContent = place.join('\n');
  element.append(lines);
}
