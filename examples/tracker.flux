// A tracker over plain lines: real BitTorrent clients announce over HTTP, which it doesn't read. A client joins a swarm and gets its peers.
Listen () => (int conn, text line);
ReadAsk (int conn, text line) => (text action, text hash, text peer, int left);
Swarm (text action, text hash, text peer, int left) => (text reply);
Scrape (text action, text hash, text peer, int left) => (text reply);
Send (text reply) => ();
Failure (int conn, text line) => ();
Full (text action, text hash, text peer, int left) => ();

typedef scrape IsScrape;

source Listen => Ask;

Ask = ReadAsk -> Do -> Send;

Do:[scrape, _, _, _] = Scrape;
Do:[_, _, _, _] = Swarm;

handle error ReadAsk => Failure;
handle error Swarm:(3) => Full;

atomic Swarm:{swarms};
atomic Scrape:{swarms?};
