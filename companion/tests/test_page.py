"""The page: what it serves, to whom, and that a query ends with it. tests/page.sh looks at it in a browser."""
import http.client
import json
import os
import threading
import time
import unittest
from urllib.parse import quote

from support import FakeTest

from daq.page import PageServer

ASK = "/ask?policy=balanced&sql=" + quote("SELECT SUM(price) FROM t")


class Pages(FakeTest):
    def serve(self, **more):
        self.play(**more)
        server = PageServer(self.table())
        self.addCleanup(server.server_close)
        self.addCleanup(server.shutdown)
        threading.Thread(target=server.serve_forever, kwargs={"poll_interval": 0.05}, daemon=True).start()
        return server

    def get(self, server, path, host=None):
        connection = http.client.HTTPConnection("127.0.0.1", server.server_port, timeout=20)
        self.addCleanup(connection.close)
        connection.request("GET", path, headers={"Host": host} if host else {})
        return connection.getresponse()

    def events(self, text):
        pairs = (part.split("\ndata: ") for part in text.strip().split("\n\n"))
        return [(event[len("event: "):], json.loads(data)) for event, data in pairs]

    def test_the_page_has_nothing_from_outside(self):
        told = self.get(self.serve(), "/")
        page = told.read().decode()
        self.assertEqual(told.status, 200)
        self.assertIn("Stop", page)
        self.assertNotRegex(page, r"https?://|src=|@import")

    def test_the_table(self):
        table = json.loads(self.get(self.serve(), "/table").read())
        self.assertEqual(table["columns"][0], ["price", "int", 4, "3", "12"])

    def test_the_blocks_of_a_query(self):
        told = self.events(self.get(self.serve(), ASK).read().decode())
        self.assertEqual([event for event, _ in told], ["block"] * 5 + ["end"])
        self.assertEqual(told[1][1]["head"], "1 plane, 8 bytes read, the last of price (1 of 4)")
        (row,) = told[0][1]["rows"]
        self.assertEqual((row["name"], row["ends"], row["sure"]), ("SUM(price)", [0.0, 1.0], True))
        self.assertEqual(told[-1][1], "finished")
        self.assertEqual(self.logged()["words"][3:], ["--policy", "balanced"])

    def test_faults(self):
        server = self.serve(query="", err="daq: query refused: syntax at 17\n", status=3)
        ((event, told),) = self.events(self.get(server, ASK).read().decode())
        self.assertEqual((event, told.split("\n")[0]), ("fault", "syntax"))
        ((event, told),) = self.events(self.get(server, ASK + "&within=a+bit").read().decode())
        self.assertEqual(event, "fault")

    def test_closing_the_page_ends_the_program(self):
        told = self.get(self.serve(pause=0.2), ASK)
        told.read1(1)
        told.close()
        pid = self.logged()["pid"]
        for _ in range(100):
            try:
                os.kill(pid, 0)
            except ProcessLookupError:
                return
            time.sleep(0.05)
        self.fail("the program still runs")

    def test_who_asks(self):
        server = self.serve()
        self.assertEqual(self.get(server, "/table", "localhost:%d" % server.server_port).status, 200)
        self.assertEqual(self.get(server, "/table", "daq.example:%d" % server.server_port).status, 403)
        self.assertEqual(self.get(server, "/nosuch").status, 404)
        self.assertEqual(server.server_address[0], "127.0.0.1")


if __name__ == "__main__":
    unittest.main()
