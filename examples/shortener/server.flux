// A link shortener: POST /URL keeps a link under a number, and GET /NUMBER sends a client there.
Accept () => (int link, text request);
ReadRequest (int link, text request) => (text method, text path);
Shorten (text method, text path) => (int number);
Created (int number) => ();
Expand (text method, text path) => (text link);
Redirect (text link) => ();
NotFound (text method, text path) => ();
BadRequest (int link, text request) => ();

source Accept => Serve;

Serve = ReadRequest -> Answer;

typedef get IsGet;
typedef head IsHead;
Answer:[get, _] = Expand -> Redirect;
Answer:[head, _] = Expand -> Redirect;
Answer:[_, _] = Shorten -> Created;

handle error ReadRequest => BadRequest;
handle error Expand => NotFound;

atomic Shorten:{links};
atomic Expand:{links?};
