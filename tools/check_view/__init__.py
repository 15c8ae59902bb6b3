"""What tools/check-view and tools/check-page hold the viewer with: programs by chance, spoilt texts and pages, hostile
names, a browser, and what a page must be."""
