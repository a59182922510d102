// A web server: it looks documents up in a folder, and answers each request with one of them or with a refusal.
Accept () => (int link, text head);
ReadRequest (int link, text head) => (text method, text path);
LookUp (text method, text path) => (text method, text name);
SendDoc (text method, text name) => ();
SendHead (text method, text name) => ();
NotFound (text method, text path) => ();
NotAllowed (text method, text path) => ();
BadRequest (int link, text head) => ();

typedef get IsGet;
typedef head IsHead;

source Accept => Serve;

Serve = ReadRequest -> Answer;

Answer:[get, _] = LookUp -> SendDoc;
Answer:[head, _] = LookUp -> SendHead;
Answer:[_, _] = NotAllowed;

handle error ReadRequest => BadRequest;
handle error LookUp => NotFound;
