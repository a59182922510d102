// Counts the bytes of all lines that clients send, and tells each client the sum so far.
Listen () => (int link, text line);
Measure (int link, text line) => (int link, int size);
Total (int link, int size) => (int link, int sum);
Tell (int link, int sum) => ();

source Listen => Count;

Count = Measure -> Total -> Tell;

atomic Total:{sizes};
