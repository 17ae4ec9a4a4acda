// The page of the looking glass. What a router said is put in as text alone, never as markup.

import {$, fail} from './elements.js';
import {livePage} from './live.js';
import {routersPage} from './routers.js';
import {searchPage} from './search.js';

const PAGES = {'/': searchPage, '/routers': routersPage, '/live': livePage};

for (const a of document.querySelectorAll('nav a')) {
  if (a.dataset.page === location.pathname) a.setAttribute('aria-current', 'page');
}
PAGES[location.pathname](new URLSearchParams(location.search)).catch(fail);
