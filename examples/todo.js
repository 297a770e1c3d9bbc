import { useState } from 'react';

export function TodoList({ items, title, log }) {
  const [filter, setFilter] = useState('all');
  const shown = [];
  for (const it of items) {
    if (filter === 'all' || it.state === filter) shown.push(it);
  }
  log({ count: shown.length });
  const header = <h1>{title}</h1>;
  const clear = () => setFilter('all');
  return (
    <section>
      {header}
      <button onClick={clear}>all</button>
      <ul>{shown.map(it => <li key={it.id}>{it.text}</li>)}</ul>
    </section>
  );
}
