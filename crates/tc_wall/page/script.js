// Asks for the board again every 5 seconds and shows it in place of the last one. If none comes, the last one stays, below a red line that says since when.
(() => {
  const EVERY = 5, PATIENCE = 10;
  let answered = Date.now(), why = '', asking = false;

  const clock = (at) => new Date(at).toISOString().slice(11, 19);
  const span = (s) => s < 60 ? `${s} s` : s < 3600 ? `${Math.floor(s / 60)} min` : s < 86400 ? `${Math.floor(s / 3600)} h ${Math.floor(s % 3600 / 60)} min`
    : `${Math.floor(s / 86400)} d ${Math.floor(s % 86400 / 3600)} h`;
  const line = (id, text) => {
    const header = document.querySelector('header');
    if (!header) return;
    const it = document.getElementById(id) || header.appendChild(document.createElement('p'));
    it.id = id;
    it.textContent = text;
    it.hidden = !text;
  };

  // how old the last move is, and since when there is no new board, by the clock of this browser
  const tell = () => {
    const moved = document.getElementById('moved');
    const age = moved ? Math.floor(Date.now() / 1000) - Number(moved.dataset.at) : 0;
    line('age', !moved ? '' : age < 0 ? 'which is later than the clock here' : `${span(age)} ago`);
    const gone = Math.floor((Date.now() - answered) / 1000);
    const silent = why || gone > EVERY + PATIENCE ? why || 'no answer' : '';
    line('silent', silent && `NO BOARD since ${clock(answered)} UTC, ${span(gone)}: ${silent}. This is the last one.`);
  };

  const show = (text) => {
    const page = new DOMParser().parseFromString(text, 'text/html');
    if (page.title !== document.title || !page.querySelector('section.urgent')) return 'another page was answered';
    if (page.querySelector('style').textContent !== document.querySelector('style').textContent) location.reload();
    document.body.replaceWith(page.body);
    answered = Date.now();
    return '';
  };

  const ask = async () => {
    if (asking) return;
    asking = true;
    try {
      const answer = await fetch(location.href, { cache: 'no-store', signal: AbortSignal.timeout(PATIENCE * 1000) });
      why = answer.status === 200 ? show(await answer.text()) : `the answer was ${answer.status}`;
    } catch {
      why = 'no answer';
    }
    asking = false;
    tell();
  };

  document.addEventListener('DOMContentLoaded', tell);
  document.addEventListener('visibilitychange', ask);
  setInterval(tell, 1000);
  setInterval(ask, EVERY * 1000);
})();
