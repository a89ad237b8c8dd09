// A link to a frame opens it.
function show() {
  const target = document.getElementById(location.hash.slice(1));
  if (target && target.tagName == 'DETAILS') {
    target.open = true;
    target.scrollIntoView();
  }
}

// The filter hides the rows and the frames whose text hasn't what was written.
function filter() {
  const field = document.getElementById('find');
  if (!field) return;
  const rows = [...document.querySelectorAll('.frames tbody tr')];
  const frames = [...document.querySelectorAll('details>summary')];
  const texts = new Map([...rows, ...frames].map((e) => [e, e.textContent.toLowerCase()]));
  field.addEventListener('input', () => {
    const word = field.value.toLowerCase();
    for (const row of rows) row.hidden = !texts.get(row).includes(word);
    for (const head of frames) head.parentNode.hidden = !texts.get(head).includes(word);
    for (const table of document.querySelectorAll('.many table')) {
      table.hidden = !table.querySelector('tbody tr:not([hidden])');
    }
    const shown = rows.filter((row) => !row.hidden).length;
    document.getElementById('shown').textContent = word ? shown + ' shown' : '';
  });
}

addEventListener('hashchange', show);
addEventListener('load', () => {
  show();
  filter();
});
