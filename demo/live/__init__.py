"""The demo to look at: two clients of one group and one of another, over a server of their own, on one page.

    sides      the groups, their clients, their switch; what the page shows of them
    web        the page, what it is told, what is done on it
    page.html  the page
"""
