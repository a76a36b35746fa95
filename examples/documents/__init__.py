"""Formulas in documents, and the pictures that replace them."""
